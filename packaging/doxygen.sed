# What doxygen reads of dcsctp.h: its plain comments become comments of doxygen (sed -E).
# The first one is of the file, and its lines in capitals are headings.
1s|^/\*|/** \\file|
s|^ \* ([A-Z]+( [A-Z]+)?)$| * ## \1|
# A heading of a part stays as it is. A comment before a declaration, and one after a field, an enumerator or a macro:
/\/\* ----/!s|^( *)/\* |\1/** |
s#^( *[A-Za-z][^/]*[,;] +|\#define .*[0-9]u? +)/\* #\1/**< #
