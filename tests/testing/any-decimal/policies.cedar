permit (principal, action, resource) when { decimal(resource.name).lessThan(decimal("1.0")) };
