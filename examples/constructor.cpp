// Objects outside all functions: their constructors run before main, in the order of the file, and their destructors
// after it, in the opposite order. In the trace: the exit (93) with main's value, 42, comes after what the
// destructors write.
#include <pthread.h>
#include <stdio.h>

class Account {
public:
    Account(const char *owner, int amount) : owner(owner), amount(amount)
    {
        printf("%s opens with %d\n", owner, amount);
    }

    ~Account()
    {
        printf("%s closes with %d\n", owner, amount);
    }

    void give(Account &other, int sum)
    {
        amount -= sum;
        other.amount += sum;
    }

    int balance() const
    {
        return amount;
    }

private:
    const char *owner;
    int amount;
};

static Account first("first", 30);
static Account second("second", first.balance() / 3);

static void *transfer(void *)
{
    static int sum = second.balance() / 5;
    first.give(second, sum);
    return nullptr;
}

int main()
{
    pthread_t threads[2];

    for (pthread_t &thread : threads)
        pthread_create(&thread, nullptr, transfer, nullptr);
    for (pthread_t thread : threads)
        pthread_join(thread, nullptr);
    return first.balance() + second.balance() + 2;
}
