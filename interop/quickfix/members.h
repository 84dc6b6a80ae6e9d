// What clients of a venue over QuickFIX share: what each session got, and how messages are sent.
#pragma once

#include <chrono>
#include <condition_variable>
#include <cstdlib>
#include <functional>
#include <iostream>
#include <map>
#include <mutex>
#include <set>
#include <stdexcept>
#include <string>
#include <vector>

#include "quickfix/Application.h"
#include "quickfix/FileLog.h"
#include "quickfix/FileStore.h"
#include "quickfix/Session.h"
#include "quickfix/SessionSettings.h"
#include "quickfix/SocketInitiator.h"

namespace {

using Seconds = std::chrono::seconds;

// What each session got from the venue: its reports in order, and whether it is up.
class Members : public FIX::Application {
public:
    void onCreate(const FIX::SessionID&) override {}

    void onLogon(const FIX::SessionID& session) override {
        change([&] { up[name(session)] = true; });
    }

    void onLogout(const FIX::SessionID& session) override {
        change([&] { up[name(session)] = false; });
    }

    void toAdmin(FIX::Message& message, const FIX::SessionID&) override {
        // QuickFIX rejects what does not fit the dictionaries.
        if (message.getHeader().getField(FIX::FIELD::MsgType) == "3") {
            fault("QuickFIX rejected a message of the venue: " + message.toString());
        }
        if (message.getHeader().getField(FIX::FIELD::MsgType) == "2") {
            change([&] { ++asked_again; });
        }
    }

    void toApp(FIX::Message& message, const FIX::SessionID&) throw(FIX::DoNotSend) override {
        if (message.getHeader().getField(FIX::FIELD::MsgType) == "j") {
            fault("QuickFIX did not take a message of the venue: " + message.toString());
        }
    }

    void fromAdmin(const FIX::Message& message, const FIX::SessionID&)
        throw(FIX::FieldNotFound, FIX::IncorrectDataFormat, FIX::IncorrectTagValue, FIX::RejectLogon) override {
        if (message.getHeader().getField(FIX::FIELD::MsgType) == "3") {
            fault("the venue rejected a message: " + message.toString());
        }
    }

    void fromApp(const FIX::Message& message, const FIX::SessionID& session)
        throw(FIX::FieldNotFound, FIX::IncorrectDataFormat, FIX::IncorrectTagValue, FIX::UnsupportedMessageType) override {
        change([&] { reports[name(session)].push_back(message); });
    }

    // Waits until something holds, and says what was waited for where it takes too long.
    void wait(const std::string& what, const std::function<bool()>& holds) {
        std::unique_lock<std::mutex> lock(guard);
        const bool came = changed.wait_for(lock, Seconds(20), [&] { return !faults.empty() || holds(); });
        if (!faults.empty()) throw std::runtime_error(faults.front());
        if (!came) throw std::runtime_error("this did not come: " + what);
        std::cout << "ok: " << what << std::endl;
    }

    // Whether a member has a report with these fields.
    bool has(const std::string& member, const std::map<int, std::string>& fields, bool again = false) const {
        const auto found = reports.find(member);
        if (found == reports.end()) return false;
        for (const FIX::Message& report : found->second) {
            bool fits = report.getHeader().isSetField(FIX::FIELD::PossDupFlag) == again;
            for (const auto& field : fields) {
                fits = fits && report.isSetField(field.first) && report.getField(field.first) == field.second;
            }
            if (fits) return true;
        }
        return false;
    }

    // How many reports a member got; one that came again counts once.
    std::size_t count(const std::string& member) const {
        const auto found = reports.find(member);
        if (found == reports.end()) return 0;
        std::set<std::string> numbers;
        for (const FIX::Message& report : found->second) numbers.insert(report.getHeader().getField(FIX::FIELD::MsgSeqNum));
        return numbers.size();
    }

    // How many reports with these fields a member got, by OrderID(37) and ExecID(17); one that came again counts once.
    std::size_t distinct(const std::string& member, const std::map<int, std::string>& fields) const {
        const auto found = reports.find(member);
        if (found == reports.end()) return 0;
        std::set<std::string> ids;
        for (const FIX::Message& report : found->second) {
            bool fits = true;
            for (const auto& field : fields) {
                fits = fits && report.isSetField(field.first) && report.getField(field.first) == field.second;
            }
            if (fits) ids.insert(report.getField(37) + " " + report.getField(17));
        }
        return ids.size();
    }

    std::map<std::string, bool> up;
    int asked_again = 0;

private:
    static std::string name(const FIX::SessionID& session) { return session.getSenderCompID().getValue(); }

    void change(const std::function<void()>& what) {
        const std::lock_guard<std::mutex> lock(guard);
        what();
        changed.notify_all();
    }

    void fault(const std::string& text) {
        change([&] { faults.push_back(text); });
    }

    std::map<std::string, std::vector<FIX::Message>> reports;
    std::vector<std::string> faults;
    std::mutex guard;
    std::condition_variable changed;
};

FIX::SessionID session_of(const std::string& member) {
    return FIX::SessionID("FIXT.1.1", member, "PEGV");
}

void send(const std::string& member, const std::string& type, const std::map<int, std::string>& fields, bool with_time = true) {
    FIX::Message message;
    message.getHeader().setField(FIX::FIELD::MsgType, type);
    for (const auto& field : fields) message.setField(field.first, field.second);
    if (with_time) message.setField(FIX::TransactTime(FIX::UtcTimeStamp(), 3));
    if (!FIX::Session::sendToTarget(message, session_of(member))) throw std::runtime_error("not sent: " + message.toString());
}

// A midpoint order for a member.
void order(const std::string& member, const std::string& id, const std::string& side, const std::string& quantity) {
    send(member, "D", {{11, id}, {55, "ABC"}, {54, side}, {38, quantity}, {40, "P"}, {1094, "2"}});
}

// Runs QuickFIX over some settings, and a day with it. The exit of the program.
template <class Day>
int run(const char* file, Day day) {
    try {
        FIX::SessionSettings settings(file);
        Members members;
        FIX::FileStoreFactory stores(settings);
        FIX::FileLogFactory logs(settings);
        FIX::SocketInitiator initiator(members, stores, settings, logs);
        initiator.start();
        day(members, initiator);
    } catch (const std::exception& fault) {
        std::cerr << "client: " << fault.what() << std::endl;
        return EXIT_FAILURE;
    }
    std::cout << "every step came" << std::endl;
    return EXIT_SUCCESS;
}

}  // namespace
