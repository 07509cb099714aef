// Prints the model that CoinUtils reads from a file: coin_reader mps|lp FILE. Numbers have 17 digits, so they are exact as doubles.
// The lines are those that tests/program/compare_readers.py knows; exit status 1 means that the file was rejected.

#include <CoinLpIO.hpp>
#include <CoinMpsIO.hpp>
#include <CoinPackedMatrix.hpp>

#include <cmath>
#include <cstdio>
#include <cstring>
#include <exception>

namespace {

void put_number(double value, double infinity) {
    if (std::fabs(value) >= infinity)
        std::printf(" %s", value < 0 ? "-inf" : "inf");
    else
        std::printf(" %.17g", value);
}

// The type of a column, by its code in the array of integer columns: 3 is a semi-continuous column.
const char *type_of(const char *codes, int column) {
    const char code = codes ? codes[column] : 0;
    return code == 0 ? "continuous" : code == 1 ? "integer" : "semi";
}

// What both readers have under the same names. The constant of the objective is the negative of its offset.
template <typename Reader>
void print_model(Reader &reader, const char *objective, const double *costs) {
    const double infinity = reader.getInfinity();
    std::printf("objective %s %.17g\n", objective ? objective : "", -reader.objectiveOffset());
    for (int i = 0; i < reader.getNumRows(); ++i) {
        std::printf("row %s", reader.rowName(i));
        put_number(reader.getRowLower()[i], infinity);
        put_number(reader.getRowUpper()[i], infinity);
        std::printf("\n");
    }
    for (int j = 0; j < reader.getNumCols(); ++j) {
        std::printf("column %s %s", reader.columnName(j), type_of(reader.integerColumns(), j));
        put_number(reader.getColLower()[j], infinity);
        put_number(reader.getColUpper()[j], infinity);
        std::printf(" %.17g\n", costs[j]);
    }
    const CoinPackedMatrix &matrix = *reader.getMatrixByCol();
    for (int j = 0; j < matrix.getNumCols(); ++j)
        for (CoinBigIndex at = matrix.getVectorFirst(j); at < matrix.getVectorLast(j); ++at)
            std::printf("entry %s %s %.17g\n", reader.columnName(j), reader.rowName(matrix.getIndices()[at]), matrix.getElements()[at]);
}

int print_mps(const char *file) {
    CoinMpsIO reader;
    reader.messageHandler()->setLogLevel(0);
    if (reader.readMps(file, "") != 0)
        return 1;
    print_model(reader, reader.getObjectiveName(), reader.getObjCoefficients());
    return 0;
}

int print_lp(const char *file) {
    CoinLpIO reader;
    reader.messageHandler()->setLogLevel(0);
    reader.readLp(file);
    print_model(reader, reader.getObjName(), reader.getObjCoefficients());
    return 0;
}

} // namespace

int main(int count, char **words) {
    if (count != 3)
        return 2;
    try {
        return std::strcmp(words[1], "lp") == 0 ? print_lp(words[2]) : print_mps(words[2]);
    } catch (CoinError &error) {
        std::fprintf(stderr, "%s\n", error.message().c_str());
        return 1;
    }
}
