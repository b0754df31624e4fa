@id("owner-views")
permit(principal, action == Shop::Action::"view", resource)
when { resource.owner == principal };

@id("managers-read")
permit(principal in Shop::Team::"managers", action in Shop::Action::"read", resource);

@id("limit")
permit(principal, action == Shop::Action::"approve", resource)
when { resource.total.lessThanOrEqual(principal.limit) }
unless { resource.tags.contains("locked") };

@id("night")
forbid(principal, action == Shop::Action::"view", resource)
when { context has hour && (context.hour < 6 || context.hour > 22) };
