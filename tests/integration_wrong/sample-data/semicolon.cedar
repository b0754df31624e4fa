permit (principal, action, resource)
