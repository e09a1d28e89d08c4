// answer.cpp: the program again. It reads the document in standard input and answers the words of the command line.
//
//   c++ -std=c++17 -o answer answer.cpp -lyds
#include <iostream>
#include <iterator>
#include <string>
#include <vector>
#include <yds.hpp>

int main(int count, char **words) {
	const std::string document{std::istreambuf_iterator<char>(std::cin), std::istreambuf_iterator<char>()};
	const yds::Answer answered = yds::answer({words + 1, words + count}, document);
	std::cout << answered.text;
	return answered.status;
}
