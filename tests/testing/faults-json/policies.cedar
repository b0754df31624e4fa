@id("typo")
permit (principal, action, resource) when { resource.nam == "x" };
