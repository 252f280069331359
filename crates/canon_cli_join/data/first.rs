#!/b
struct S;//x