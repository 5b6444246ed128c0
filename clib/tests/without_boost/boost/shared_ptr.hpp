// What comedilib's binding for C++ needs of Boost, by the standard library.
#pragma once
#include <memory>

namespace boost
{
	using std::shared_ptr;
	template <class T> using scoped_ptr = std::unique_ptr<T>;
}
