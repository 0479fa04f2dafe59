void set(_Out_writes_(n) int *a, unsigned int n, unsigned int i)
{
    if (i < n)
        a[i] = 1;
}
