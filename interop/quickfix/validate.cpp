// QuickFIX's own look at frames by the dictionaries of this folder: validate FIXT11.xml FIX50SP2.xml < LINES
//
// A line is one frame, with '|' in place of the byte 0x01. Of each that an engine wouldn't take it prints why, and the frame; at the end how many it
// would. Status 2 where a dictionary can't be read.

#include <algorithm>
#include <iostream>
#include <string>

#include <quickfix/DataDictionary.h>
#include <quickfix/Message.h>

namespace {

// Why a frame isn't taken, or nothing.
std::string fault(std::string line, const FIX::DataDictionary &session, const FIX::DataDictionary &application) {
  std::replace(line.begin(), line.end(), '|', '\001');
  try {
    const FIX::Message message(line, session, application, true);
    if (message.isAdmin())
      session.validate(message);
    else
      FIX::DataDictionary::validate(message, &session, &application);
    return "";
  } catch (const FIX::Exception &thrown) {
    return thrown.what();
  }
}

} // namespace

int main(int count, char **words) {
  if (count != 3) {
    std::cerr << "validate FIXT11.xml FIX50SP2.xml\n";
    return 2;
  }
  try {
    const FIX::DataDictionary session(words[1]), application(words[2]);
    int taken = 0;
    for (std::string line; std::getline(std::cin, line);) {
      const std::string said = fault(line, session, application);
      if (said.empty())
        ++taken;
      else
        std::cout << said << ": " << line << "\n";
    }
    std::cout << taken << " frames are taken\n";
    return 0;
  } catch (const std::exception &thrown) {
    std::cerr << thrown.what() << "\n";
    return 2;
  }
}
