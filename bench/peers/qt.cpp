// The jobs of bench/peers.py by Qt Concurrent: OPERATION BLOCK THREADS TEXT.., where the operation is digest, length or contains.
// The sizes of blocks are Qt's own.
#include <QByteArray>
#include <QByteArrayView>
#include <QCryptographicHash>
#include <QFile>
#include <QFuture>
#include <QList>
#include <QThreadPool>
#include <QtConcurrent>
#include <cstdio>

static QByteArray digest(QByteArrayView line)
{
    QCryptographicHash hash(QCryptographicHash::Sha256);
    hash.addData(line);
    return hash.result().toHex();
}

static QByteArray length(QByteArrayView line)
{
    return QByteArray::number(line.size());
}

static bool contains(QByteArrayView line)
{
    return line.contains("77");
}

static QList<QByteArrayView> lines(const QByteArray &text)
{
    QList<QByteArrayView> found;
    for (qsizetype begin = 0; begin < text.size();) {
        qsizetype end = text.indexOf('\n', begin);
        if (end < 0)
            end = text.size();
        found.append(QByteArrayView(text).sliced(begin, end - begin));
        begin = end + 1;
    }
    return found;
}

static void put(QByteArrayView value)
{
    fwrite(value.data(), 1, value.size(), stdout);
    fputc('\n', stdout);
}

template <typename Results> static void report(char name, const Results &values)
{
    printf("job %c finished %lld\n", name, static_cast<long long>(values.size()));
    for (const auto &value : values)
        put(value);
}

int main(int count, char **words)
{
    if (count < 5)
        return 2;
    const QByteArray operation(words[1]);
    QThreadPool pool;
    pool.setMaxThreadCount(QByteArray(words[3]).toInt());
    QList<QByteArray> texts;
    for (int place = 4; place < count; place++) {
        QFile file(QString::fromLocal8Bit(words[place]));
        if (!file.open(QIODevice::ReadOnly))
            return 4;
        texts.append(file.readAll());
    }
    QList<QFuture<QByteArray>> mapped;
    QList<QFuture<QByteArrayView>> filtered;
    for (const QByteArray &text : texts) {
        if (operation == "contains")
            filtered.append(QtConcurrent::filtered(&pool, lines(text), contains));
        else
            mapped.append(QtConcurrent::mapped(&pool, lines(text), operation == "digest" ? digest : length));
    }
    for (qsizetype place = 0; place < texts.size(); place++) {
        if (operation == "contains")
            report('a' + place, filtered[place].results());
        else
            report('a' + place, mapped[place].results());
    }
    return 0;
}
