// A number of hours is not a duration.
@id("session")
forbid (principal, action, resource)
unless { context.now.durationSince(principal.signedIn) <= 8 };
