permit(principal, action, resource) when { principal.age > 17 };
