// A pool with a reserved thread: tasks by priority, one that is taken back.
#include <QDebug>
#include <QMutex>
#include <QRunnable>
#include <QSemaphore>
#include <QStringList>
#include <QThreadPool>

static QMutex mutex;
static QStringList order;

static QRunnable *task(const QString &name)
{
    QRunnable *made = QRunnable::create([name] {
        QMutexLocker held(&mutex);
        order << name;
    });
    made->setAutoDelete(true);
    return made;
}

int main()
{
    QSemaphore first;
    // pool
    QThreadPool pool;
    pool.setMaxThreadCount(2);
    pool.reserveThread();                        // one of the two is held back, so tasks run one after the other
    pool.start([&first] { first.acquire(); });
    QRunnable *back = task("taken back");
    pool.start(task("write"), 0);
    pool.start(task("print"), 5);
    pool.start(back, 9);
    qDebug() << "active" << pool.activeThreadCount() << "taken back" << pool.tryTake(back);
    first.release();
    pool.waitForDone();
    pool.releaseThread();
    qDebug() << order << "active" << pool.activeThreadCount();
    // end
    delete back;
}
