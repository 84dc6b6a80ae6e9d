// Members over QuickFIX with its file stores, led by lines: `FUND D 11=f-1|55=ABC|54=1|38=100|40=P|1094=2|` has FUND send that message, with its time.
// Tells a line for each thing that comes: `FUND up`, `FUND down`, and `FUND` with a report as its fields, behind it `again` where it came by a resend.
// It ends at the end of its input, by a Logout of each member. Whatever does not fit the dictionaries ends it with 1.
#include <cstdio>
#include <sstream>

#include "members.h"

namespace {

// Tells what comes, a line at a time.
class Telling : public Members {
public:
    void onLogon(const FIX::SessionID& session) override {
        Members::onLogon(session);
        tell(session, "up");
    }

    void onLogout(const FIX::SessionID& session) override {
        Members::onLogout(session);
        tell(session, "down");
    }

    void fromApp(const FIX::Message& message, const FIX::SessionID& session)
        throw(FIX::FieldNotFound, FIX::IncorrectDataFormat, FIX::IncorrectTagValue, FIX::UnsupportedMessageType) override {
        Members::fromApp(message, session);
        std::string text = "35=" + message.getHeader().getField(FIX::FIELD::MsgType) + "|";
        for (const auto& field : message) text += std::to_string(field.getTag()) + "=" + field.getString() + "|";
        if (message.getHeader().isSetField(FIX::FIELD::PossDupFlag)) text += " again";
        tell(session, text);
    }

private:
    void tell(const FIX::SessionID& session, const std::string& what) {
        const std::lock_guard<std::mutex> lock(guard);
        std::cout << session.getSenderCompID().getValue() << " " << what << std::endl;
    }

    std::mutex guard;
};

void obey(const std::string& line) {
    std::istringstream words(line);
    std::string member, type, text, field;
    words >> member >> type;
    std::getline(words >> std::ws, text);
    std::map<int, std::string> fields;
    for (std::istringstream parts(text); std::getline(parts, field, '|');) {
        const std::size_t equals = field.find('=');
        if (equals == std::string::npos) throw std::runtime_error("no field: " + field);
        fields[std::stoi(field.substr(0, equals))] = field.substr(equals + 1);
    }
    send(member, type, fields, type != "H");
}

}  // namespace

int main(int count, char** words) {
    if (count != 2) {
        std::cerr << "usage: speak SETTINGS" << std::endl;
        return EXIT_FAILURE;
    }
    try {
        FIX::SessionSettings settings(words[1]);
        Telling members;
        FIX::FileStoreFactory stores(settings);
        FIX::FileLogFactory logs(settings);
        FIX::SocketInitiator initiator(members, stores, settings, logs);
        initiator.start();
        for (std::string line; std::getline(std::cin, line);) obey(line);
        initiator.stop();
        // Throws where a message did not fit.
        members.wait("no message was refused", [] { return true; });
    } catch (const std::exception& fault) {
        std::cerr << "speak: " << fault.what() << std::endl;
        return EXIT_FAILURE;
    }
    return EXIT_SUCCESS;
}
