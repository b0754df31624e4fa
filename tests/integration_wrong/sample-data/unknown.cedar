permit (principal, action, resource) when { iq("10.0.0.1") };
