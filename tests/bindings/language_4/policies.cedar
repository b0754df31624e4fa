permit(principal, action, resource) when { principal.from.isInRange(ip("10.0.0.0/8")) };
