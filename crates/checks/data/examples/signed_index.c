void put(int i, int v, _Out_writes_(n) int *table, int n)
{
    if (i < n)
        table[i] = v;
}

void put_checked(int i, int v, _Out_writes_(n) int *table, int n)
{
    if (0 <= i)
        if (i < n)
            table[i] = v;
}
