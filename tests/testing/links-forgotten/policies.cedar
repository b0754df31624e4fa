@id("grant")
permit (principal == ?principal, action == Action::"view", resource == ?resource);
@id("unused")
permit (principal in ?principal, action, resource) when { principal.age > 17 };
@id("aged")
permit (principal in ?principal, action, resource) when { principal.age > 17 };
