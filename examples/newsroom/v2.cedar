// The same rules, by what a stage or a role isn't.

@id("published")
permit (principal, action == Action::"readArticle", resource)
unless { resource.stage != Stage::"published" && !resource.shownTo.containsAny([principal.role]) };

// what is neither published nor withdrawn is a draft or in review
@id("authors")
permit (principal, action in [Action::"readArticle", Action::"editArticle"], resource)
when { principal == resource.author }
unless { resource.stage in [Stage::"published", Stage::"withdrawn"] };

@id("to review")
permit (principal, action == Action::"moveArticle", resource)
when { {who: resource.author, from: resource.stage, to: context.to} == {who: principal, from: Stage::"draft", to: Stage::"review"} };

@id("desk")
permit (principal, action in [Action::"readArticle", Action::"editArticle", Action::"moveArticle"], resource)
when { principal in resource.desk && principal.role != Role::"reporter" && principal.role != Role::"reader" };

@id("chief")
permit (principal, action == Action::"withdrawArticle", resource)
unless { [Role::"reader", Role::"reporter", Role::"editor"].contains(principal.role) && !(principal has deputy && !(principal.deputy in [Role::"reader", Role::"reporter", Role::"editor"])) };

@id("lists")
permit (principal, action == Action::"listStage", resource)
unless { principal.role == Role::"reader" && [Stage::"draft", Stage::"review", Stage::"withdrawn"].contains(resource) };

@id("withdrawn")
forbid (principal, action in [Action::"editArticle", Action::"moveArticle", Action::"withdrawArticle"], resource)
unless { [Stage::"draft", Stage::"review", Stage::"published"].contains(resource.stage) };

// a move goes to another stage that isn't the withdrawn one
@id("moves")
forbid (principal, action == Action::"moveArticle", resource)
unless { context.to != resource.stage && [Stage::"draft", Stage::"review", Stage::"published"].contains(context.to) };
