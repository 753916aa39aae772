// A promise that one thread fills and another reads.
#include <QDebug>
#include <QtConcurrent>

// promise
static void produce(QPromise<int> &promise, int count)
{
    for (int number = 0; number < count; ++number) {
        promise.suspendIfRequested();
        if (promise.isCanceled())
            return;
        promise.addResult(number * number);
    }
}

static int consume(const QFuture<int> &future, int count)
{
    int sum = 0;
    for (int number = 0; number < count; ++number)
        sum += future.resultAt(number);
    return sum;
}
// end

int main()
{
    QFuture<int> future = QtConcurrent::run(produce, 100);
    qDebug() << consume(future, 100);
}
