permit(principal, action, resource) when {
  if principal.age > 17 then (resource.name == "plan") else false };
