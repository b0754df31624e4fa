// Many tenants share a billing service. Each has users, accounts and invoices, and must not see those of the others.

// Clerks may read. Managers may read too, because their group is in the group of the clerks.
@id("read")
permit (principal in Tenants::Group::"clerks", action in Billing::Action::"read", resource);

// The approvers of an account may view it.
@id("approvers-view")
permit (principal is Tenants::User, action == Billing::Action::"view", resource is Billing::Account)
when { resource.approvers.contains(principal) };

// Clerks may approve small invoices.
@id("approve-small")
permit (principal in Tenants::Group::"clerks", action == Billing::Action::"approve", resource)
when { resource.amount.lessThanOrEqual(decimal("1000.50")) };

// A user with a limit may approve up to it.
@id("approve-limit")
permit (principal, action == Billing::Action::"approve", resource)
when { principal has limit && resource.amount.lessThanOrEqual(principal.limit) };

// Managers may pay exactly the amount of the invoice, in a currency that the service knows.
@id("pay")
permit (principal is Tenants::User in Tenants::Group::"managers", action == Billing::Action::"pay", resource)
when { context.amount == resource.amount && ["CHF", "EUR"].contains(context.currency) };

// Managers may export invoices, payments or both, of up to 366 days, which are 8784 hours.
@id("export")
permit (principal in Tenants::Group::"managers", action == Billing::Action::"export", resource)
when {
  context.days * 24 <= 8784 && !context.kinds.isEmpty() && ["invoice", "payment"].containsAll(context.kinds)
};

// Support may view everything if it names a ticket.
@id("support")
permit (principal in Tenants::Group::"support", action == Billing::Action::"view", resource)
when { context has ticket && context.ticket like "T-*" };

// Tenants are kept apart, except for support. An entity that is not stored has no tenant, so it cannot be reached either.
@id("apart")
forbid (principal, action, resource)
unless { principal has tenant && resource has tenant && principal.tenant == resource.tenant }
unless { principal in Tenants::Group::"support" };

// A suspended tenant may not change anything.
@id("suspended")
forbid (principal, action in Billing::Action::"change", resource)
when { principal has tenant.suspended && principal.tenant.suspended };

// A device may not change anything if its risk is high. If its risk is not known, it must be trusted.
@id("device")
forbid (principal, action in Billing::Action::"change", resource)
when {
  if context.device has risk then context.device.risk.greaterThan(decimal("0.5")) else !context.device.trusted
};

// Large invoices may be paid only with the signature of an approver of their account. If the account is not stored, this
// policy fails and is skipped.
@id("four-eyes")
forbid (principal, action == Billing::Action::"pay", resource)
when { resource.amount.greaterThanOrEqual(decimal("5000.0")) }
unless { resource.account.approvers.containsAny(context.signatures) };

// Drafts may not be approved or paid.
@id("drafts")
forbid (principal, action in Billing::Action::"change", resource)
when { resource.number like "DRAFT-*" };
