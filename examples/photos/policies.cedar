// A photo service: users own photos, photos are in albums, and albums are shared with groups.

// Jane's friends may view and comment on everything in her vacation album.
@id("shared-with-friends")
permit (
  principal in UserGroup::"jane_friends",
  action in [Action::"view", Action::"comment"],
  resource in Album::"jane_vacation"
);

// The owner of a photo may do everything with it.
@id("owner")
permit (principal is User, action, resource is Photo)
when { resource has owner && resource.owner == principal };

// Everybody may view photos with the label public.
@id("public")
permit (principal, action == Action::"view", resource is Photo)
when { resource has labels && resource.labels.contains("public") };

// Administrators may do everything.
@id("administrators")
permit (principal in UserGroup::"administrators", action, resource);

// But a private photo is only for its owner. If a photo is not stored, this policy fails.
@id("private")
forbid (principal, action, resource is Photo)
when { resource.private }
unless { resource has owner && resource.owner == principal };
