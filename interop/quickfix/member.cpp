// A member's engine by QuickFIX that interop/certify can judge: member CONFIG [MISTAKE] < LINES
//
// It is the firm of the CONFIG's session, and does what each line asks for (interop/certify says how lines look): it sends a command, and waits for
// the answer before it reads the next line. After a connection that was lost it logs on anew, and sends what has no answer again, with its id.
//
// Three mistakes on purpose: `numbers` doesn't begin them anew at a Logon (CONFIG has to have ResetOnLogon=N), `id` has its second command under the
// id of its first, `answer` doesn't wait for the answer whose number it needs.

#include <algorithm>
#include <chrono>
#include <condition_variable>
#include <iostream>
#include <map>
#include <mutex>
#include <sstream>
#include <string>
#include <vector>

#include <quickfix/Application.h>
#include <quickfix/Message.h>
#include <quickfix/MessageStore.h>
#include <quickfix/Session.h>
#include <quickfix/SessionSettings.h>
#include <quickfix/SocketInitiator.h>

namespace {

const std::chrono::seconds patience(60);

FIX::Message instruction(const std::string &transaction, const std::string &type, const std::string &of) {
  FIX::Message made;
  made.getHeader().setField(35, "J");
  made.setField(71, transaction);
  made.setField(626, type);
  if (!of.empty())
    made.setField(72, of);
  return made;
}

FIX::Group part(const std::string &account, const std::string &lots) {
  const int order[] = {79, 80, 539, 0};
  FIX::Group made(78, 79, order);
  made.setField(79, account);
  if (!lots.empty())
    made.setField(80, lots);
  return made;
}

// A part by its word: ACCOUNT=LOTS, or @FIRM=LOTS.
FIX::Group partOf(const std::string &word) {
  const size_t at = word.find('=');
  const std::string name = word.substr(0, at), lots = word.substr(at + 1);
  if (name[0] != '@')
    return part(name, lots);
  FIX::Group made = part("GIVEN", lots), party(539, 524);
  party.setField(524, name.substr(1));
  party.setField(525, "D");
  party.setField(538, "4");
  made.addGroup(party);
  return made;
}

// The engine: what waits for an answer, and the last answer.
class Member : public FIX::NullApplication {
public:
  explicit Member(const std::string &mistake) : mistake(mistake) {}

  void onLogon(const FIX::SessionID &of) override {
    std::lock_guard<std::mutex> held(lock);
    session = of;
    isOn = true;
    if (!pending.empty())
      deliver();
    changed.notify_all();
  }

  // Has the next Logons say which reports it has: those of this book up to an entry. Without a book they say nothing.
  void has(const std::string &of, const std::string &last) {
    std::lock_guard<std::mutex> held(lock);
    book = of;
    newest = last;
  }

  void toAdmin(FIX::Message &message, const FIX::SessionID &) override {
    std::lock_guard<std::mutex> held(lock);
    if (book.empty() || message.getHeader().getField(35) != "A")
      return;
    message.setField(5006, book);
    message.setField(5005, newest);
  }

  void onLogout(const FIX::SessionID &) override {
    std::lock_guard<std::mutex> held(lock);
    isOn = false;
    changed.notify_all();
  }

  void fromApp(const FIX::Message &message, const FIX::SessionID &)
      throw(FIX::FieldNotFound, FIX::IncorrectDataFormat, FIX::IncorrectTagValue, FIX::UnsupportedMessageType) override {
    if (message.getHeader().getField(35) != "P")
      return;
    std::lock_guard<std::mutex> held(lock);
    if (message.getField(70) == pending)
      pending.clear();
    entry = message.isSetField(793) ? std::stol(message.getField(793)) : entry;
    changed.notify_all();
  }

  bool isSession(bool on) {
    return wait([&] { return isOn == on; });
  }

  // Sends a command under an id of its own.
  void send(const FIX::Message &command) {
    std::lock_guard<std::mutex> held(lock);
    ++sent;
    pending = "Q" + std::to_string(mistake == "id" && sent == 2 ? 1 : sent);
    kept = command;
    kept.setField(70, pending);
    deliver();
  }

  bool isAnswered() {
    return wait([&] { return pending.empty(); });
  }

  std::string firstPart() {
    std::lock_guard<std::mutex> held(lock);
    return std::to_string(entry) + ".1";
  }

  // The mistake of one that takes the next number for that of its split.
  std::string guessedPart() {
    std::lock_guard<std::mutex> held(lock);
    return std::to_string(entry + 1) + ".1";
  }

private:
  // Under the lock: sends what waits for its answer.
  void deliver() {
    FIX::Message copy = kept;
    if (isOn)
      FIX::Session::sendToTarget(copy, session);
  }

  template <typename Test> bool wait(Test test) {
    std::unique_lock<std::mutex> held(lock);
    return changed.wait_for(held, patience, test);
  }

  const std::string mistake;
  std::mutex lock;
  std::condition_variable changed;
  FIX::SessionID session;
  FIX::Message kept;
  std::string pending, book, newest;
  bool isOn = false;
  long entry = 0;
  int sent = 0;
};

FIX::Message splitOf(const std::string &node, const std::vector<std::string> &parts) {
  FIX::Message made = instruction("0", "17", node);
  for (const std::string &word : parts)
    made.addGroup(partOf(word));
  return made;
}

// A command in which no other part of a line matters.
FIX::Message simple(const std::vector<std::string> &words) {
  static const std::map<std::string, std::pair<const char *, const char *>> pairs = {{"refuse", {"0", "19"}}, {"cancel", {"2", "17"}},
      {"consent", {"6", "20"}}, {"reverse", {"6", "21"}}, {"decline", {"6", "22"}}};
  if (words[0] == "claim") {
    FIX::Message made = instruction("0", "18", words.at(1));
    made.addGroup(part(words.at(2), ""));
    return made;
  }
  if (words[0] == "raise") {
    FIX::Message made = instruction("0", "91", "");
    made.setField(5001, words.at(1));
    made.setField(5004, words.at(2));
    return made;
  }
  const auto &pair = pairs.at(words[0]);
  return instruction(pair.first, pair.second, words.at(1));
}

bool splitTwice(Member &member, const std::vector<std::string> &words, bool isHasty) {
  const auto slash = std::find(words.begin(), words.end(), "/");
  member.send(splitOf(words.at(1), {words.begin() + 2, slash}));
  if (isHasty)
    member.send(splitOf(member.guessedPart(), {slash + 1, words.end()}));
  else if (member.isAnswered())
    member.send(splitOf(member.firstPart(), {slash + 1, words.end()}));
  return member.isAnswered();
}

bool does(Member &member, FIX::Session *session, std::vector<std::string> words, const std::string &mistake) {
  if (words[0] == "logon" || words[0] == "logout") {
    const bool on = words[0] == "logon", hasReports = words.size() > 2;
    member.has(hasReports ? words[1] : "", hasReports ? words[2] : "");
    on ? session->logon() : session->logout();
    return member.isSession(on);
  }
  if (words[0] == "split-on")
    return splitTwice(member, words, mistake == "answer");
  const bool isSplit = words[0] == "split";
  if (isSplit && words.back() == "note")
    words.pop_back(); // a text that is empty is left out
  member.send(isSplit ? splitOf(words.at(1), {words.begin() + 2, words.end()}) : simple(words));
  return member.isAnswered();
}

} // namespace

int main(int count, char **words) {
  if (count < 2) {
    std::cerr << "member CONFIG [numbers|id|answer] < LINES\n";
    return 2;
  }
  try {
    const std::string mistake = count > 2 ? words[2] : "";
    Member member(mistake);
    FIX::SessionSettings settings(words[1]);
    FIX::MemoryStoreFactory stores;
    FIX::SocketInitiator initiator(member, stores, settings);
    FIX::Session *session = FIX::Session::lookupSession(*initiator.getSessions().begin());
    session->logout();
    initiator.start();
    for (std::string line; std::getline(std::cin, line);) {
      std::istringstream read(line);
      std::vector<std::string> asked;
      for (std::string word; read >> word;)
        asked.push_back(word);
      if (!asked.empty() && !does(member, session, asked, mistake))
        std::cerr << "member: not done in time: " << line << "\n";
    }
    initiator.stop();
    return 0;
  } catch (const std::exception &fault) {
    std::cerr << fault.what() << "\n";
    return 1;
  }
}
