permit(principal, action, resource) when { principal has nick && principal.nick == "x" };
