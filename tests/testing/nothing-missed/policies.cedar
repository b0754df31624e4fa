permit (principal in Team::"staff", action, resource) when { principal.age > 17 };
