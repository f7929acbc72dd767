// For a compiler that comes without its headers: C's own words for bool.
#define bool _Bool
#define true 1
#define false 0
