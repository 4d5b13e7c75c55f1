// Qt 6 SCXML, where it is installed: the same chart from SCXML text, an event submitted and its event loop asked for what it has posted.
#pragma once
#include "contenders.hpp"
#include <QBuffer>
#include <QCoreApplication>
#include <QLoggingCategory>
#include <QScxmlStateMachine>
#include <memory>

class Qt6 : public Contender
{
public:
    explicit Qt6(const Description &d)
    {
        QByteArray text = QByteArray::fromStdString(scxml(d));
        QBuffer buffer(&text);
        buffer.open(QIODevice::ReadOnly);
        machine.reset(QScxmlStateMachine::fromData(&buffer));
        if (!machine->parseErrors().isEmpty())
            fail("Qt does not read the chart: " + machine->parseErrors().first().toString().toStdString());
        machine->start();
        QCoreApplication::sendPostedEvents();
        QCoreApplication::processEvents();
        if (active().empty())
            fail("Qt does not start");
    }

    std::string name() const override { return "Qt 6"; }

    void play(const Events &events, size_t count) override
    {
        std::vector<QString> names;
        for (const std::string &event : events)
            names.push_back(QString::fromStdString(event));
        for (size_t at = 0; count > 0; count--) {
            machine->submitEvent(names[at]);
            QCoreApplication::sendPostedEvents();
            at = at + 1 == names.size() ? 0 : at + 1;
        }
    }

    States active() const override
    {
        States found;
        for (const QString &id : machine->activeStateNames(true))
            found.insert(id.toStdString());
        return found;
    }

private:
    std::unique_ptr<QScxmlStateMachine> machine;
};
