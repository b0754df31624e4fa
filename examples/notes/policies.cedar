// A shared notebook. Ann may do everything with it except delete it, and Bob may read it. Everybody except the admin is
// forbidden to delete it, and no policy permits the admin to delete it.
permit(principal == User::"ann", action, resource == Notebook::"plans");

permit(principal == User::"bob", action == Action::"read", resource == Notebook::"plans");

forbid(principal, action == Action::"delete", resource == Notebook::"plans")
unless { principal == User::"admin" };
