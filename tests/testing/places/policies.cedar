permit(principal, action, resource)
when { "é😀" != "x" && principal == User::"bob" };// a comment permit(principal,action,resource) when { principal == User::"zoe" };
