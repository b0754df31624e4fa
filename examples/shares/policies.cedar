// Remote access to documents: from where, until when, and how long after signing in.
// The service writes the address of the client and the time into the context of each request.

// Owners may read and edit their documents from the office.
@id("office")
permit (principal, action, resource)
when { resource.owner == principal && context.ip.isInRange(ip("10.0.0.0/8")) };

// Owners may also read them from their network at home.
@id("home")
permit (principal, action == Action::"read", resource)
when {
  resource.owner == principal &&
  principal has homeNetwork && context.ip.isInRange(principal.homeNetwork)
};

// A document is shared with a team until the share ends. At that moment it has ended.
@id("shared")
permit (principal, action == Action::"read", resource)
when {
  resource has sharedWith && principal in resource.sharedWith &&
  resource has sharedUntil && context.now < resource.sharedUntil
};

// From 08:00 to 18:00 UTC auditors may read every document from the office.
@id("audit")
permit (principal in Team::"auditors", action == Action::"read", resource)
when {
  context.ip.isInRange(ip("10.0.0.0/8")) &&
  context.now.toTime() >= duration("8h") && context.now.toTime() < duration("18h")
};

// Nobody may come in over a proxy on the server itself.
@id("proxy")
forbid (principal, action, resource)
when { context.ip.isLoopback() };

// Who signed in more than eight hours ago has to sign in again.
@id("session")
forbid (principal, action, resource)
unless { context.now.durationSince(principal.signedIn) <= duration("8h") };

// Before its release a document is only for its owner. It is released some time after its approval.
@id("embargo")
forbid (principal, action, resource)
when { resource has embargo && context.now < resource.embargo.approved.offset(resource.embargo.wait) }
unless { resource.owner == principal };
