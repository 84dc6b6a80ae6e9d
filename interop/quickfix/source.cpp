// A source of market data over QuickFIX: an acceptor that sends snapshots once they are asked for, and goes on after its connection was cut.
// It ends once the feed has logged on twice and has got all snapshots.
#include <quickfix/Application.h>
#include <quickfix/FileLog.h>
#include <quickfix/MessageCracker.h>
#include <quickfix/Session.h>
#include <quickfix/SessionSettings.h>
#include <quickfix/SocketAcceptor.h>
#include <quickfix/Values.h>

#include <atomic>
#include <chrono>
#include <iostream>
#include <string>
#include <thread>

namespace {

void wait(int milliseconds) {
  std::this_thread::sleep_for(std::chrono::milliseconds(milliseconds));
}

class Source : public FIX::Application {
 public:
  std::atomic<int> logons{0};
  std::atomic<int> asked{0};
  std::atomic<int> rejects{0};

  void onCreate(const FIX::SessionID&) override {}
  void onLogon(const FIX::SessionID&) override { ++logons; }
  void onLogout(const FIX::SessionID&) override {}
  void toAdmin(FIX::Message&, const FIX::SessionID&) override {}
  void toApp(FIX::Message&, const FIX::SessionID&) throw(FIX::DoNotSend) override {}
  void fromAdmin(const FIX::Message& message, const FIX::SessionID&) throw(
      FIX::FieldNotFound, FIX::IncorrectDataFormat, FIX::IncorrectTagValue, FIX::RejectLogon) override {
    if (message.getHeader().getField(35) == "3") {
      ++rejects;
    }
  }
  void fromApp(const FIX::Message& message, const FIX::SessionID&) throw(
      FIX::FieldNotFound, FIX::IncorrectDataFormat, FIX::IncorrectTagValue, FIX::UnsupportedMessageType) override {
    if (message.getHeader().getField(35) == "V") {
      ++asked;
    }
  }
};

void send_snapshot(const FIX::SessionID& id, const std::string& bid, const std::string& offer) {
  FIX::Message message;
  message.getHeader().setField(35, "W");
  message.setField(55, "ABC");
  FIX::Group first(268, 269);
  first.setField(269, "0");
  first.setField(270, bid);
  first.setField(275, "NYSE");
  message.addGroup(first);
  FIX::Group second(268, 269);
  second.setField(269, "1");
  second.setField(270, offer);
  second.setField(275, "NYSE");
  message.addGroup(second);
  FIX::Session::sendToTarget(message, id);
}

bool reaches(const std::atomic<int>& count, int wanted) {
  for (int i = 0; i < 400 && count < wanted; ++i) {
    wait(25);
  }
  return count >= wanted;
}

}  // namespace

int main(int, char** words) {
  FIX::SessionSettings settings(words[1]);
  Source source;
  FIX::MemoryStoreFactory store;
  FIX::FileLogFactory log(settings);
  FIX::SocketAcceptor acceptor(source, store, settings, log);
  acceptor.start();
  const FIX::SessionID id("FIXT.1.1", "SIP", "PEGV");
  bool good = reaches(source.asked, 1);
  send_snapshot(id, "20.00", "20.02");
  send_snapshot(id, "20.001", "20.02");
  send_snapshot(id, "20.01", "20.02");
  good = good && reaches(source.rejects, 1);
  wait(200);
  FIX::Session::lookupSession(id)->disconnect();
  good = good && reaches(source.asked, 2);
  send_snapshot(id, "20.01", "20.03");
  // Longer than a heartbeat interval and more, so that Heartbeats and TestRequests go both ways.
  wait(13'000);
  send_snapshot(id, "20.02", "20.03");
  wait(300);
  FIX::Session::lookupSession(id)->logout();
  wait(500);
  acceptor.stop(true);
  std::cout << (good && source.logons == 2 ? "served" : "FAILED") << ": " << source.logons << " logons, " << source.asked << " requests, "
            << source.rejects << " rejects\n";
  return good && source.logons == 2 ? 0 : 1;
}
