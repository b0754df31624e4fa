// An address.
permit (principal, action, resource) when { ip("10.0.0.1").isIpv4() };
