void clear_heads(_Out_writes_(n) int *a, _Out_writes_(m) int *b, unsigned int n, unsigned int m)
{
    if (n != 0) {
        a[0] = 0;
        if (m >= n)
            b[0] = 0;
    }
}
