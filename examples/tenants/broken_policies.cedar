// Clerks may approve invoices up to 1000.
@id("approve-small")
permit (principal in Tenants::Group::"clerks", action == Billing::Action::"approve", resource)
when { resource.amount <= 1000 };
