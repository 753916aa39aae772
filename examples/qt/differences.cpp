// What a user of Qt's may trip over, each with what Qt does.
#include <QCoreApplication>
#include <QDebug>
#include <QFutureInterface>
#include <QFutureWatcher>
#include <QPromise>
#include <QThread>
#include <QThreadPool>
#include <QtConcurrent>
#include <atomic>

static void resultsAfterCancel()
{
    QPromise<int> promise;
    QFuture<int> future = promise.future();
    promise.start();
    promise.addResult(7);
    future.cancel();
    qDebug() << "results after a cancel:" << future.results() << "though" << future.resultCount() << "was accepted";
    promise.finish();
}

static void secondThen()
{
    QPromise<int> promise;
    QFuture<int> future = promise.future();
    auto first = future.then([](int) { qDebug() << "second then: the first runs"; });
    auto second = future.then([](int) { qDebug() << "second then: the second runs"; });
    promise.start();
    promise.addResult(7);
    promise.finish();
    qDebug() << "second then: the first's future is canceled:" << first.isCanceled() << "the second's:" << second.isCanceled();
}

static void readyAfterCancel()
{
    QPromise<int> promise;
    QFutureWatcher<int> watcher;
    int ready = 0;
    QObject::connect(&watcher, &QFutureWatcher<int>::resultReadyAt, [&ready](int) { ++ready; });
    watcher.setFuture(promise.future());
    promise.start();
    promise.addResult(7);
    promise.future().cancel();
    promise.finish();
    QCoreApplication::processEvents();
    qDebug() << "ready after a cancel: the watcher was told of" << ready << "results";
}

static void suspendThenStart()
{
    QPromise<int> promise;
    promise.future().suspend();
    qDebug() << "suspend and then start: before" << promise.future().isSuspending();
    promise.start();
    qDebug() << "suspend and then start: after" << promise.future().isSuspending();
    promise.finish();
}

static void overlappingBatches()
{
    QFutureInterface<int> future;
    future.reportStarted();
    future.reportResults({30, 40}, 2, -1);
    const bool taken = future.reportResults({1, 2, 3}, 0, -1);
    qDebug() << "overlapping batches: taken" << taken << "count" << future.resultCount();
    for (int index = 0; index < 4; ++index)
        if (future.isResultReadyAt(index))
            qDebug() << "overlapping batches: at" << index << future.resultReference(index);
    future.reportFinished();
}

static void releaseBelowZero()
{
    QThreadPool pool;
    pool.setMaxThreadCount(1);
    pool.releaseThread();
    std::atomic<int> in{0}, most{0};
    for (int task = 0; task < 2; ++task)
        pool.start([&] {
            const int now = ++in;
            for (int seen = most; seen < now && !most.compare_exchange_weak(seen, now);) {}
            QThread::msleep(300);
            --in;
        });
    pool.waitForDone();
    qDebug() << "a release below zero: a pool of 1 ran" << most.load() << "tasks at once";
}

static void cancelAfterFinish()
{
    QPromise<int> promise;
    promise.start();
    promise.finish();
    promise.future().cancel();
    qDebug() << "a cancel after the end: canceled" << promise.future().isCanceled();
}

int main(int count, char **words)
{
    QCoreApplication app(count, words);
    resultsAfterCancel();
    secondThen();
    readyAfterCancel();
    suspendThenStart();
    overlappingBatches();
    releaseBelowZero();
    cancelAfterFinish();
}
