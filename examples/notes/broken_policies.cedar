// Ann may write the plans, and everybody may read them.
permit(principal == User::"ann", action == Action::"write", resource)

permit(principal, action == Action::"read", resource);
