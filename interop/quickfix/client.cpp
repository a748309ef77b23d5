// A small client of allocd over QuickFIX: the house enters a trade, AAA splits it and gives a part up, BBB claims it, and the claim is
// reversed with the consent of both. Then the house makes terms for what BBB gives to AAA, AAA raises its limit, and the raise is
// reversed with the consent of both. It prints each answer as it comes, and at the end the reports of each firm.
//
// client CONFIG

#include <chrono>
#include <condition_variable>
#include <iostream>
#include <map>
#include <memory>
#include <mutex>
#include <string>
#include <vector>

#include <quickfix/Application.h>
#include <quickfix/FileLog.h>
#include <quickfix/Message.h>
#include <quickfix/MessageStore.h>
#include <quickfix/Session.h>
#include <quickfix/SessionSettings.h>
#include <quickfix/SocketInitiator.h>

namespace {

const std::chrono::seconds patience(60);

std::string value(const FIX::FieldMap &from, int tag) {
  return from.isSetField(tag) ? " " + std::to_string(tag) + "=" + from.getField(tag) : "";
}

// What came on each session.
class Client : public FIX::NullApplication {
public:
  void onLogon(const FIX::SessionID &session) override {
    note([&] { sessions[session.getSenderCompID().getValue()] = session; });
  }

  void fromAdmin(const FIX::Message &message, const FIX::SessionID &session)
      throw(FIX::FieldNotFound, FIX::IncorrectDataFormat, FIX::IncorrectTagValue, FIX::RejectLogon) override {
    if (message.getHeader().getField(35) == "3")
      note([&] { answers[session.getSenderCompID().getValue()].push_back("Reject" + value(message, 371) + value(message, 373)); });
  }

  void fromApp(const FIX::Message &message, const FIX::SessionID &session)
      throw(FIX::FieldNotFound, FIX::IncorrectDataFormat, FIX::IncorrectTagValue, FIX::UnsupportedMessageType) override {
    const std::string kind = message.getHeader().getField(35);
    std::string text = kind;
    for (int tag : {571, 939, 70, 755, 71, 794, 793, 87, 72, 55, 54, 53, 58, 78})
      text += value(message, tag);
    note([&] { (kind == "AS" ? reports : answers)[session.getSenderCompID().getValue()].push_back(text); });
  }

  bool hasLoggedOn(size_t count) {
    return wait([&] { return sessions.size() >= count; });
  }

  // Sends a message of a firm, and prints the answer to it.
  bool ask(const std::string &firm, FIX::Message message) {
    size_t before;
    {
      std::lock_guard<std::mutex> held(lock);
      before = answers[firm].size();
    }
    message.getHeader().setField(FIX::MsgType(message.getHeader().getField(35)));
    FIX::Session::sendToTarget(message, sessions.at(firm));
    if (!wait([&] { return answers[firm].size() > before; })) {
      std::cout << firm << ": no answer\n";
      return false;
    }
    std::lock_guard<std::mutex> held(lock);
    std::cout << firm << ": " << answers[firm][before] << "\n";
    return true;
  }

  // Waits for so many reports of a firm, and prints them.
  bool tell(const std::string &firm, size_t count) {
    const bool all = wait([&] { return reports[firm].size() >= count; });
    std::lock_guard<std::mutex> held(lock);
    std::cout << "reports to " << firm << ":\n";
    for (const std::string &report : reports[firm])
      std::cout << "  " << report << "\n";
    return all;
  }

private:
  template <typename Change> void note(Change change) {
    std::lock_guard<std::mutex> held(lock);
    change();
    changed.notify_all();
  }

  template <typename Test> bool wait(Test test) {
    std::unique_lock<std::mutex> held(lock);
    return changed.wait_for(held, patience, test);
  }

  std::mutex lock;
  std::condition_variable changed;
  std::map<std::string, FIX::SessionID> sessions;
  std::map<std::string, std::vector<std::string>> answers, reports;
};

FIX::Message message(const char *kind) {
  FIX::Message made;
  made.getHeader().setField(35, kind);
  return made;
}

FIX::Message trade(const char *id, const char *firm, const char *account, const char *lots) {
  FIX::Message made = message("AE");
  made.setField(571, id);
  made.setField(55, "ESZ6");
  made.setField(32, lots);
  FIX::Group side(552, 54);
  side.setField(54, "1");
  FIX::Group party(453, 448);
  party.setField(448, firm);
  party.setField(447, "D");
  party.setField(452, "4");
  side.addGroup(party);
  side.setField(1, account);
  made.addGroup(side);
  return made;
}

FIX::Message instruction(const char *id, const char *transaction, const char *type) {
  FIX::Message made = message("J");
  made.setField(70, id);
  made.setField(71, transaction);
  made.setField(626, type);
  return made;
}

FIX::Message instruction(const char *id, const char *transaction, const char *type, const char *of) {
  FIX::Message made = instruction(id, transaction, type);
  made.setField(72, of);
  return made;
}

FIX::Message agreement(const char *id, const char *giver, const char *taker, const char *rate, const char *limit) {
  FIX::Message made = instruction(id, "0", "90");
  made.setField(5001, giver);
  made.setField(5002, taker);
  made.setField(5003, rate);
  made.setField(5004, limit);
  return made;
}

FIX::Message raise(const char *id, const char *giver, const char *lots) {
  FIX::Message made = instruction(id, "0", "91");
  made.setField(5001, giver);
  made.setField(5004, lots);
  return made;
}

const int inPart[] = {79, 80, 539, 0};

FIX::Group ownPart(const char *account, const char *lots) {
  FIX::Group part(78, 79, inPart);
  part.setField(79, account);
  if (lots)
    part.setField(80, lots);
  return part;
}

FIX::Group givenPart(const char *firm, const char *lots) {
  FIX::Group part = ownPart("GIVEN", lots);
  FIX::Group to(539, 524);
  to.setField(524, firm);
  to.setField(525, "D");
  to.setField(538, "4");
  part.addGroup(to);
  return part;
}

bool day(Client &client) {
  FIX::Message split = instruction("S1", "0", "17", "1.0");
  split.addGroup(ownPart("A2", "60"));
  split.addGroup(givenPart("BBB", "40"));
  FIX::Message claim = instruction("C1", "0", "18", "2.2");
  claim.addGroup(ownPart("B1", nullptr));
  return client.hasLoggedOn(3) && client.ask("HSE", trade("T1", "AAA", "A1", "100")) && client.ask("AAA", split)
      && client.ask("BBB", claim) && client.ask("BBB", instruction("I1", "6", "20", "3"))
      && client.ask("BBB", instruction("V1", "6", "21", "3")) && client.ask("AAA", instruction("I1", "6", "20", "3"))
      && client.ask("BBB", instruction("V2", "6", "21", "3")) && client.ask("HSE", agreement("G1", "BBB", "AAA", "50", "1000"))
      && client.ask("AAA", raise("R1", "BBB", "200")) && client.ask("AAA", instruction("I2", "6", "20", "8"))
      && client.ask("AAA", instruction("V3", "6", "21", "8")) && client.ask("BBB", instruction("I2", "6", "20", "8"))
      && client.ask("AAA", instruction("V4", "6", "21", "8")) && client.tell("HSE", 1) && client.tell("AAA", 6)
      && client.tell("BBB", 5);
}

} // namespace

int main(int count, char **words) {
  if (count != 2) {
    std::cerr << "client CONFIG\n";
    return 2;
  }
  try {
    Client client;
    FIX::SessionSettings settings(words[1]);
    FIX::MemoryStoreFactory stores;
    FIX::FileLogFactory logs(settings);
    FIX::SocketInitiator initiator(client, stores, settings, logs);
    initiator.start();
    const bool well = day(client);
    initiator.stop();
    return well ? 0 : 1;
  } catch (const std::exception &fault) {
    std::cerr << fault.what() << "\n";
    return 1;
  }
}
