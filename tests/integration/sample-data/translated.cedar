// The ids look like the positions of other statements; "@id("policy9")" in this comment is none.
@id("policy3") @doc("an owner; of a doc")
permit (principal, action, resource) when { resource.owner == principal };

// A template has a position, too.
@id("share")
permit (principal == ?principal, action, resource);

permit (principal, action, resource) when { principal.admin && context.near.city == "Ulm; or \"Ulm\"" };

@id("policy\u{30}")
forbid (principal, action, resource) when { principal.home has zip && principal.home.zip * 2 > 100 };
