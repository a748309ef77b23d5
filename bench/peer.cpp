// What a house would take instead of allocd: an acceptor of QuickFIX that takes trades and their splits into own parts, answers from what it has in
// memory, and has each new entry in PostgreSQL, by one transaction, before it answers. Each session has a connection of its own to the database.
//
// peer CONFIG [DATABASE]: by QuickFIX's configuration CONFIG; DATABASE is libpq's text of a connection, and where none is given nothing is kept.
// It runs until it is killed, and ends with status 1 where the database refuses something.

#include <cstdlib>
#include <iostream>
#include <map>
#include <memory>
#include <mutex>
#include <sstream>
#include <string>
#include <unordered_map>
#include <vector>

#include <libpq-fe.h>
#include <quickfix/Application.h>
#include <quickfix/Message.h>
#include <quickfix/MessageStore.h>
#include <quickfix/Session.h>
#include <quickfix/SessionSettings.h>
#include <quickfix/ThreadedSocketAcceptor.h>
#include <quickfix/fix50sp2/AllocationInstruction.h>
#include <quickfix/fix50sp2/TradeCaptureReport.h>
#include <unistd.h>

namespace {

struct Part {
  std::string account;
  unsigned long lots;
  bool is_split;
};

// A call that was accepted: its number, what it said, and the parts that it made.
struct Entry {
  unsigned long number;
  std::string said;
  std::vector<Part> parts;
};

[[noreturn]] void end(const std::string &why) {
  std::cerr << "peer: " << why << std::endl;
  _exit(1);
}

// A connection to the database, with its statement prepared.
class Store {
public:
  explicit Store(const std::string &database) : connection(PQconnectdb(database.c_str()), PQfinish) {
    if (PQstatus(connection.get()) != CONNECTION_OK)
      end(PQerrorMessage(connection.get()));
    const char *keep = "WITH entry AS (INSERT INTO entries (number, firm, id, said) VALUES ($1, $2, $3, $4))"
                       " INSERT INTO parts (entry, part, account, lots) SELECT $1, part, account, lots"
                       " FROM unnest($5::text[], $6::bigint[]) WITH ORDINALITY AS made (account, lots, part)";
    see(PQprepare(connection.get(), "keep", keep, 0, nullptr));
  }

  // One transaction, which is on the disk when this returns.
  void keep(const std::string &firm, const std::string &id, const Entry &entry) {
    std::string accounts = "{", lots = "{";
    for (const Part &it : entry.parts) {
      const char *comma = accounts.size() > 1 ? "," : "";
      accounts += comma + it.account;
      lots += comma + std::to_string(it.lots);
    }
    accounts += "}";
    lots += "}";
    const std::string number = std::to_string(entry.number);
    const char *values[] = {number.c_str(), firm.c_str(), id.c_str(), entry.said.c_str(), accounts.c_str(), lots.c_str()};
    see(PQexecPrepared(connection.get(), "keep", 6, values, nullptr, nullptr, 0));
  }

private:
  void see(PGresult *result) {
    const std::unique_ptr<PGresult, decltype(&PQclear)> held(result, PQclear);
    if (PQresultStatus(result) != PGRES_COMMAND_OK)
      end(PQerrorMessage(connection.get()));
  }

  std::unique_ptr<PGconn, decltype(&PQfinish)> connection;
};

// The number of the entry, or a refusal.
struct Answer {
  unsigned long number;
  std::string refusal;
};

// The book in memory: entries by their numbers, and by firm and id.
class Book {
public:
  // Takes a call whose parts are made of nothing (node empty) or of a node; `fresh` is given each new entry.
  template <typename Fresh>
  Answer take(const std::string &firm, const std::string &id, const std::string &said, const std::string &node, std::vector<Part> parts,
              Fresh fresh) {
    Entry entry;
    {
      const std::lock_guard<std::mutex> lock(mutex);
      const auto known = by_id.find(firm + ' ' + id);
      if (known != by_id.end())
        return entries[known->second - 1].said == said ? Answer{known->second, ""} : Answer{0, "10 duplicate id"};
      const std::string refusal = refusal_of(node, parts);
      if (!refusal.empty())
        return {0, refusal};
      entry = {entries.size() + 1, said, std::move(parts)};
      entries.push_back(entry);
      by_id.emplace(firm + ' ' + id, entry.number);
    }
    fresh(entry);
    return {entry.number, ""};
  }

private:
  // The node of a name as 2.1, or none.
  Part *node_of(const std::string &name) {
    unsigned long entry = 0, part = 0;
    char dot = 0;
    std::istringstream from(name);
    if (!(from >> entry >> dot >> part) || dot != '.' || entry < 1 || entry > entries.size())
      return nullptr;
    std::vector<Part> &parts = entries[entry - 1].parts;
    const size_t at = parts.size() == 1 ? part : part - 1; // a trade's only node is 0, a split's are 1 and up
    return at < parts.size() ? &parts[at] : nullptr;
  }

  std::string refusal_of(const std::string &node, const std::vector<Part> &parts) {
    unsigned long sum = 0;
    for (const Part &it : parts) {
      if (it.account != "A1" && it.account != "A2")
        return "2 unknown account";
      sum += it.lots;
    }
    if (node.empty())
      return "";
    Part *split = node_of(node);
    if (!split)
      return "4 unknown node";
    if (split->is_split)
      return "6 already split";
    if (split->lots != sum)
      return "7 lots differ";
    split->is_split = true;
    return "";
  }

  std::mutex mutex;
  std::vector<Entry> entries;
  std::unordered_map<std::string, unsigned long> by_id;
};

class Peer : public FIX::NullApplication {
public:
  explicit Peer(const char *database) : database(database ? database : "") {}

  void onLogon(const FIX::SessionID &session) override {
    if (database.empty())
      return;
    std::unique_ptr<Store> store(new Store(database));
    const std::lock_guard<std::mutex> lock(mutex);
    stores[session] = std::move(store);
  }

  void fromApp(const FIX::Message &message, const FIX::SessionID &session)
      throw(FIX::FieldNotFound, FIX::IncorrectDataFormat, FIX::IncorrectTagValue, FIX::UnsupportedMessageType) override {
    const std::string &kind = message.getHeader().getField(35);
    if (kind == "AE")
      trade(message, session);
    else if (kind == "J" && message.getField(626) == "17")
      split(message, session);
    else
      throw FIX::UnsupportedMessageType();
  }

private:
  Answer taken(const FIX::SessionID &session, const std::string &id, const std::string &said, const std::string &node, std::vector<Part> parts) {
    const std::string &firm = session.getTargetCompID().getValue();
    return book.take(firm, id, said, node, std::move(parts), [&](const Entry &entry) {
      if (Store *store = store_of(session))
        store->keep(firm, id, entry);
    });
  }

  void trade(const FIX::Message &message, const FIX::SessionID &session) {
    FIX50SP2::TradeCaptureReport::NoSides side;
    FIX50SP2::TradeCaptureReport::NoSides::NoPartyIDs party;
    message.getGroup(1, side);
    side.getGroup(1, party);
    const std::string &id = message.getField(571), &lots = message.getField(32), &account = side.getField(1);
    const std::string said = message.getField(55) + ' ' + lots + ' ' + side.getField(54) + ' ' + party.getField(448) + ' ' + account;
    const Answer answer = taken(session, id, said, "", {{account, std::stoul(lots), false}});
    FIX::Message reply;
    reply.getHeader().setField(35, "AR");
    reply.setField(571, id);
    reply.setField(939, answer.number ? "0" : "1");
    reply.setField(58, answer.number ? "entry " + std::to_string(answer.number) : answer.refusal);
    FIX::Session::sendToTarget(reply, session);
  }

  void split(const FIX::Message &message, const FIX::SessionID &session) {
    const std::string &id = message.getField(70), &node = message.getField(72);
    std::string said = node;
    std::vector<Part> parts;
    for (int i = 1, count = std::stoi(message.getField(78)); i <= count; i++) {
      FIX50SP2::AllocationInstruction::NoAllocs part;
      message.getGroup(i, part);
      parts.push_back({part.getField(79), std::stoul(part.getField(80)), false});
      said += ' ' + part.getField(79) + ' ' + part.getField(80);
    }
    const Answer answer = taken(session, id, said, node, std::move(parts));
    FIX::Message reply;
    reply.getHeader().setField(35, "P");
    reply.setField(70, id);
    if (answer.number)
      reply.setField(793, std::to_string(answer.number));
    else
      reply.setField(58, answer.refusal);
    reply.setField(87, answer.number ? "0" : "1");
    FIX::Session::sendToTarget(reply, session);
  }

  Store *store_of(const FIX::SessionID &session) {
    const std::lock_guard<std::mutex> lock(mutex);
    const auto found = stores.find(session);
    return found == stores.end() ? nullptr : found->second.get();
  }

  const std::string database;
  Book book;
  std::mutex mutex;
  std::map<FIX::SessionID, std::unique_ptr<Store>> stores;
};

} // namespace

int main(int count, char **words) {
  if (count < 2 || count > 3) {
    std::cerr << "peer CONFIG [DATABASE]" << std::endl;
    return 2;
  }
  try {
    Peer peer(count == 3 ? words[2] : nullptr);
    const FIX::SessionSettings settings(words[1]);
    FIX::MemoryStoreFactory stores;
    FIX::ThreadedSocketAcceptor acceptor(peer, stores, settings);
    acceptor.start();
    for (;;)
      pause();
  } catch (const std::exception &why) {
    std::cerr << "peer: " << why.what() << std::endl;
    return 1;
  }
}
