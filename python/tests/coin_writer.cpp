// Has CoinUtils write the model that it reads from a free MPS file, and prints what it holds: coin_writer FILE MPS MPS17 LP.
// MPS has the digits of its columns, MPS17 has 17 digits. The lines are those of python/tests/held_models.py.

#include <CoinLpIO.hpp>
#include <CoinMpsIO.hpp>
#include <CoinPackedMatrix.hpp>

#include <cmath>
#include <cstdio>
#include <cstring>
#include <exception>
#include <string>
#include <vector>

namespace {

void put_number(double value, double infinity) {
    if (std::fabs(value) >= infinity)
        std::printf(" %s", value < 0 ? "-inf" : "inf");
    else
        std::printf(" %.17g", value);
}

// The constant of the objective is the negative of its offset.
void print_held(const CoinMpsIO &model) {
    const double infinity = model.getInfinity();
    std::printf("sense minimize\nconstant %.17g\n", -model.objectiveOffset());
    for (int i = 0; i < model.getNumRows(); ++i) {
        std::printf("row %s", model.rowName(i));
        put_number(model.getRowLower()[i], infinity);
        put_number(model.getRowUpper()[i], infinity);
        std::printf("\n");
    }
    const char *codes = model.integerColumns();
    for (int j = 0; j < model.getNumCols(); ++j) {
        const char code = codes ? codes[j] : 0;
        std::printf("column %s %s", model.columnName(j), code == 0 ? "continuous" : code == 1 ? "integer" : "semi");
        put_number(model.getColLower()[j], infinity);
        put_number(model.getColUpper()[j], infinity);
        std::printf("\ncost %s %.17g\n", model.columnName(j), model.getObjCoefficients()[j]);
    }
    const CoinPackedMatrix &matrix = *model.getMatrixByCol();
    for (int j = 0; j < matrix.getNumCols(); ++j)
        for (CoinBigIndex at = matrix.getVectorFirst(j); at < matrix.getVectorLast(j); ++at)
            std::printf("entry %s %s %.17g\n", model.columnName(j), model.rowName(matrix.getIndices()[at]), matrix.getElements()[at]);
}

void write_lp(const CoinMpsIO &model, const char *file) {
    CoinLpIO writer;
    writer.messageHandler()->setLogLevel(0);
    writer.setLpDataWithoutRowAndColNames(*model.getMatrixByRow(), model.getColLower(), model.getColUpper(), model.getObjCoefficients(),
                                          model.integerColumns(), model.getRowLower(), model.getRowUpper());
    std::vector<const char *> rows, columns;
    for (int i = 0; i < model.getNumRows(); ++i)
        rows.push_back(model.rowName(i));
    rows.push_back(model.getObjectiveName());
    for (int j = 0; j < model.getNumCols(); ++j)
        columns.push_back(model.columnName(j));
    writer.setLpDataRowAndColNames(rows.data(), columns.data());
    writer.setObjectiveOffset(model.objectiveOffset());
    writer.writeLp(file);
}

} // namespace

int main(int count, char **words) {
    if (count != 5)
        return 2;
    try {
        CoinMpsIO model;
        model.messageHandler()->setLogLevel(0);
        if (model.readMps(words[1], "") != 0)
            return 1;
        print_held(model);
        model.writeMps(words[2]);
        model.writeMps(words[3], 0, 1, 1);
        write_lp(model, words[4]);
        return 0;
    } catch (CoinError &error) {
        std::fprintf(stderr, "%s\n", error.message().c_str());
        return 1;
    }
}
