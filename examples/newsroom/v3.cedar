// Who in a newsroom may do what with articles. Roles and stages are enumerated: there are just the listed ones.

// What is published may be read by everybody, and what is shown to a role by those who have it
@id("published")
permit (principal, action == Action::"readArticle", resource)
when { resource.stage == Stage::"published" || resource.shownTo.contains(principal.role) };

// Authors read and edit what isn't out yet
@id("authors")
permit (principal, action in [Action::"readArticle", Action::"editArticle"], resource)
when { resource.author == principal }
unless { resource.stage == Stage::"published" };

// ... and ask for a review
@id("to review")
permit (principal, action == Action::"moveArticle", resource)
when { resource.author == principal && resource.stage == Stage::"draft" && context.to == Stage::"review" };

// A desk's editors, and its chief, read, edit and move what the desk has
@id("desk")
permit (principal, action in [Action::"readArticle", Action::"editArticle", Action::"moveArticle"], resource)
when { principal in resource.desk }
when { !(principal.role in [Role::"reader"]) };

// Only the chief withdraws, or who stands in
@id("chief")
permit (principal, action == Action::"withdrawArticle", resource)
when { principal.role == Role::"chief" || (principal has deputy && principal.deputy == Role::"chief") };

// Lists: readers see what is published alone
@id("lists")
permit (principal, action == Action::"listStage", resource)
when { resource == Stage::"published" || principal.role != Role::"reader" };

// What was withdrawn stays as it is
@id("withdrawn")
forbid (principal, action in Action::"change", resource is Article)
when { resource.stage == Stage::"withdrawn" };

// A move goes elsewhere, and never to the withdrawn
@id("moves")
forbid (principal, action == Action::"moveArticle", resource)
when { context.to == resource.stage || context.to == Stage::"withdrawn" };

// No one without a role. (The schema sees to it.)
@id("roles")
forbid (principal, action, resource)
unless { [Role::"reader", Role::"reporter", Role::"editor", Role::"chief"].contains(principal.role) };
