#include "other.lp".
a.
