@internal
permit (principal, action, resource);
