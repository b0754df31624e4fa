/* What the tests of reports in parts share: a schema of two environments, and policies of which each may have a fault in both of them. */
#ifndef PARTS_H
#define PARTS_H

static const char PARTS_SCHEMA[] =
    "{\"\":{\"entityTypes\":{\"User\":{},\"Admin\":{},\"Doc\":{}},\"actions\":{\"view\":{\"appliesTo\":{\"principalTypes\":[\"User\",\"Admin\"],"
    "\"resourceTypes\":[\"Doc\"]}},\"read\":{}}}}";

/* A policy without faults, one that reads an attribute that is not declared (603), and one that no request can satisfy (650). */
#define RIGHT_POLICY "permit(principal, action, resource);\n"
#define WRONG_POLICY "permit(principal, action, resource) when { resource.size > 0 };\n"
#define VAIN_POLICY "forbid(principal, action == Action::\"read\", resource);\n"

/* A line of the fault of a policy for one type of principals, and a line of a warning, of the forms of docs/REFUSALS.md. */
#define FAULT_LINE(policy, principal) \
    "{\"action\":{\"id\":\"view\",\"type\":\"Action\"},\"fault\":603,\"policy\":\"" policy "\"," \
    "\"principal\":\"" principal "\",\"resource\":\"Doc\"}\n"
#define WARNING_LINE(policy) "{\"policy\":\"" policy "\",\"warning\":650}\n"

/* So many policies have more text than a part, and are more than a part has. */
#define MANY_POLICIES 3000
/* What cedar.h says of a part. */
#define PART_BYTES 65536
#define PART_POLICIES 1000
#endif
