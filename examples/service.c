#include <pthread.h>
#include <unistd.h>

static pthread_mutex_t account = PTHREAD_MUTEX_INITIALIZER;
static pthread_mutex_t audit = PTHREAD_MUTEX_INITIALIZER;

static void *pay(void *x) {
    pthread_mutex_lock(&account);
    pthread_mutex_lock(&audit);
    pthread_mutex_unlock(&audit);
    pthread_mutex_unlock(&account);
    return x;
}

static void *report(void *x) {
    sleep(1);
    pthread_mutex_lock(&audit);
    pthread_mutex_lock(&account);
    pthread_mutex_unlock(&account);
    pthread_mutex_unlock(&audit);
    return x;
}

int main(void) {
    pthread_t payer, reporter;
    pthread_create(&payer, 0, pay, 0);
    pthread_create(&reporter, 0, report, 0);
    pthread_join(payer, 0);
    pthread_join(reporter, 0);
    return 0;
}
