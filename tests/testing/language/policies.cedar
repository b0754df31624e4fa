permit (principal, action, resource) when { context.from.isInRange(ip("10.0.0.0/8")) };
forbid (principal, action, resource) when { context.now >= datetime("2027-01-01") };
