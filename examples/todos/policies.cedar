// A to-do service: users own lists, and share them with readers and editors.

// The owner of a list may do everything with it.
@id("owner")
permit (principal, action, resource is List)
when { resource has owner && resource.owner == principal };

// Readers and editors of a list may read it. Editors may change it, too.
@id("read-shared")
permit (principal, action == Action::"read_list", resource is List)
when {
  (resource has readers && principal in resource.readers) ||
  (resource has editors && principal in resource.editors)
};

@id("edit-shared")
permit (principal, action in [Action::"add_task", Action::"finish_task"], resource is List)
when { resource has editors && principal in resource.editors };

// Every user may create lists, but at most a hundred if the request says how many there are.
@id("create")
permit (principal is User, action == Action::"create_list", resource == Service::"todos")
unless { context has lists && context.lists + 1 > 100 };

// Temporary workers may not delete anything.
@id("temporary")
forbid (
  principal in Team::"temporary",
  action in [Action::"delete_list", Action::"delete_task"],
  resource
);

// One list can be shared with one user: a template, which has no effect without links.
@id("share-with")
permit (
  principal == ?principal,
  action in [Action::"read_list", Action::"add_task"],
  resource == ?resource
);
