// A source-hosting service: repositories have readers, writers and maintainers, which are teams or users.
// The file entities.json says who is in which team, and which branches and repositories belong where.

// Everybody may read public repositories.
@id("public")
permit (principal, action in [Action::"pull", Action::"fork"], resource is Repository)
when { resource has visibility && resource.visibility == "public" };

// Each role of a repository includes the lower ones: the team of its maintainers is in the team of its writers, so
// maintainers may write. The team of its writers is in the team of its readers, so writers may read.
@id("read")
permit (principal, action in [Action::"pull", Action::"fork"], resource is Repository)
when { resource has readers && principal in resource.readers };

@id("write")
permit (principal, action == Action::"push", resource is Repository)
when { resource has writers && principal in resource.writers };

// Writers may push to the branches of their repository, too.
@id("branches")
permit (principal, action == Action::"push", resource is Branch)
when {
  resource has repository && resource.repository has writers && principal in resource.repository.writers
};

@id("maintain")
permit (principal, action, resource is Repository)
when { resource has maintainers && principal in resource.maintainers };

// The platform team maintains its own repositories.
@id("platform")
permit (principal in Team::"platform", action, resource in Organization::"platform");

// The website team may write the website and the branches that are named here.
@id("website")
permit (principal in Team::"website", action in [Action::"pull", Action::"push"], resource)
when { resource in Repository::"website" || resource in [Branch::"website/main", Branch::"website/release"] };

// Further rights on a repository or a branch: the file links.json says who has them, and where.
@id("grant")
permit (principal in ?principal, action in [Action::"pull", Action::"push"], resource in ?resource);

// A bot may push only if the request has a score of its trust, and a good one.
@id("bots")
forbid (principal is Bot, action == Action::"push", resource)
unless {
  context has trust && context.trust.greaterThanOrEqual(decimal("0.9500"))
};

// Nobody may push release branches, not even those who write or maintain the repository.
@id("release")
forbid (principal, action == Action::"push", resource is Branch)
when {
  resource == Branch::"website/release" ||
  (if resource has name then resource.name like "release/*" else false)
};
