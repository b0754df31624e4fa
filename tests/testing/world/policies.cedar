// The owner of a document may do everything with it. In a comment, "; permit (" is not syntax.
@id("owner")
permit (principal is User, action, resource is Doc)
when { resource.owner == principal };

permit (
  principal in Team::"staff",
  action in [Action::"view", Action::"edit"],
  resource
)
when {
  principal.age > 17 && resource.name != "unless { x } // ;"
};

@id("frozen")
forbid (principal, action == Action::"edit", resource)
unless { resource.name like "draft*" };
