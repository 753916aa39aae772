// Lists that are mapped, filtered and reduced, with a future and in place.
#include <QCoreApplication>
#include <QDebug>
#include <QList>
#include <QString>
#include <QtConcurrent>

static qsizetype length(const QString &line) { return line.size(); }
static bool isLong(const QString &line) { return line.size() > 1; }
static void join(QString &sum, const QString &line) { sum += (sum.isEmpty() ? "" : "-") + line; }
static QString same(const QString &line) { return line; }
static void upper(QString &line) { line = line.toUpper(); }

int main()
{
    const QList<QString> lines{"a", "bb", "c", "dd"};

    // mapped
    QFuture<qsizetype> lengths = QtConcurrent::mapped(lines, length);
    qDebug() << "mapped" << lengths.results();

    // filtered
    QFuture<QString> kept = QtConcurrent::filtered(lines, isLong);
    qDebug() << "filtered" << kept.results();

    // mappedReduced
    QFuture<QString> joined = QtConcurrent::mappedReduced(lines, same, join, QtConcurrent::OrderedReduce);
    qDebug() << "mappedReduced" << joined.result();

    // the four blocking calls
    QList<QString> own = lines;
    QtConcurrent::blockingMap(own, upper);
    qDebug() << "blockingMap" << own;
    QtConcurrent::blockingFilter(own, isLong);
    qDebug() << "blockingFilter" << own;
    qDebug() << "blockingMapped" << QtConcurrent::blockingMapped(lines, length);
    qDebug() << "blockingFiltered" << QtConcurrent::blockingFiltered(lines, isLong);
}
