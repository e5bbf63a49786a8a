/* No function at all: only data and types. */
struct gel {
    int number;
    const char *name;
};
struct gel gels[] = {{106, "primary red"}, {119, "dark blue"}};
