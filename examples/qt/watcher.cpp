// Who watches a future is told its events.
#include <QCoreApplication>
#include <QDebug>
#include <QFutureWatcher>
#include <QPromise>

int main(int count, char **words)
{
    QCoreApplication app(count, words);
    // watcher
    QPromise<int> promise;
    QFutureWatcher<int> watcher;
    QObject::connect(&watcher, &QFutureWatcher<int>::started, [] { qDebug() << "started"; });
    QObject::connect(&watcher, &QFutureWatcher<int>::resultReadyAt, [](int index) { qDebug() << "ready" << index; });
    QObject::connect(&watcher, &QFutureWatcher<int>::canceled, [] { qDebug() << "canceled"; });
    QObject::connect(&watcher, &QFutureWatcher<int>::finished, [] { qDebug() << "finished"; });
    QObject::connect(&watcher, &QFutureWatcher<int>::finished, &app, &QCoreApplication::quit);
    watcher.setFuture(promise.future());
    promise.start();
    promise.addResult(7);
    promise.addResult(8);
    promise.finish();
    return app.exec();
    // end
}
