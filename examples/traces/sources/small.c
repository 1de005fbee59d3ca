// Calls that nest, in two threads.
#include <pthread.h>
#include <stddef.h>

static volatile int total;

void leaf(int n)
{
    for (int i = 0; i < n * 1000; i++)
        total += i % 7;
}

void tree(int n)
{
    leaf(n + 1);
    if (n > 0) {
        tree(n - 1);
        tree(n - 1);
    }
}

void *other(void *argument)
{
    tree(3);
    return argument;
}

int main(void)
{
    pthread_t thread;
    pthread_create(&thread, NULL, other, NULL);
    tree(4);
    pthread_join(thread, NULL);
    return 0;
}
