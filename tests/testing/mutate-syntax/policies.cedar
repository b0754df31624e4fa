@note("permit(principal == User::\"x\", action, resource);")
@id("policy0")
permit( // when { true }
 principal is User in Team::"a, (b", action, resource)
  when { (
   (principal.age > 1 || 1 == 1)    && "\" && {" != "" // && "
  && !(2 == 3 && 1 == 1)) }
  unless { if 1 == 2 then true else false } when{true||false&&true};
